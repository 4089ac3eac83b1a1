# Completion of plumctl for fish. Put it into ~/.config/fish/completions, or source it:
#
#   source docs/completions/plumctl.fish

set -l commands frame run draw file live help
set -l is_first "not __fish_seen_subcommand_from $commands"

complete -c plumctl -f
complete -c plumctl -s h -l help -d 'Print help'
complete -c plumctl -n $is_first -s V -l version -d 'Print the version'
complete -c plumctl -n $is_first -l unproved -d 'Of the script ./plumctl alone: run what is built without proofs'
complete -c plumctl -n $is_first -a frame -d 'Print the frames that lines of hexadecimal digits spell'
complete -c plumctl -n $is_first -a run -d 'Run a scenario over the nodes of a new cluster'
complete -c plumctl -n $is_first -a draw -d 'Draw a run of a scenario, as an SVG picture'
complete -c plumctl -n $is_first -a file -d 'Print what the file of a node holds, or where it is damaged'
complete -c plumctl -n $is_first -a live -d 'Run a cluster of threads, and judge what they did'
complete -c plumctl -n $is_first -a help -d 'Print help'
complete -c plumctl -n '__fish_seen_subcommand_from frame run draw file; and not __fish_seen_subcommand_from help' -F
complete -c plumctl -n '__fish_seen_subcommand_from frame' -l key -r -F -d 'Open each frame, which is sealed under a key in this file'
complete -c plumctl -n '__fish_seen_subcommand_from run' -l explain -d 'After each command, print more'
complete -c plumctl -n '__fish_seen_subcommand_from draw' -l from -x -d 'Draw no command of an earlier line'
complete -c plumctl -n '__fish_seen_subcommand_from draw' -l to -x -d 'Draw no command of a later line'
complete -c plumctl -n '__fish_seen_subcommand_from draw' -l fold -d 'Draw each settle as one band'
complete -c plumctl -n '__fish_seen_subcommand_from file' -l rewrite -r -F -d 'Make a clean copy, where nothing is yet'
complete -c plumctl -n '__fish_seen_subcommand_from file' -l compact -d 'Put a clean copy in the place of the file'
complete -c plumctl -n '__fish_seen_subcommand_from live' -l record -r -F -d 'Write the run down as a scenario'
complete -c plumctl -n '__fish_seen_subcommand_from live' -l files -r -a '(__fish_complete_directories)' -d 'Run the nodes on files in a new folder'
complete -c plumctl -n '__fish_seen_subcommand_from live' -l mixed -d 'Let turns do all that a node can be asked'
complete -c plumctl -n '__fish_seen_subcommand_from help' -a "$commands"
