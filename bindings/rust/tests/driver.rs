//! Sixteen drivers by a clock of their own: nobody is left alone, all agree, and who is gone is given up.

#[path = "common/drivers.rs"]
mod drivers;

use drivers::{Cluster, Links, NODES, PACE};
use zomtagi::{Driver, Node};

/// Lets so many ticks of each node pass.
fn ticks(cluster: &mut Cluster, count: u64) {
    cluster.pass(count * PACE.tick);
}

/// How many ticks pass until all hold the same.
fn ticks_to_agree(cluster: &mut Cluster) -> usize {
    let mut count = 0;
    while !cluster.agrees() {
        ticks(cluster, 1);
        count += 1;
        assert!(count < 100);
    }
    count
}

#[test]
fn no_node_is_left_alone_and_all_agree() {
    for (seed, links, lost) in
        [(1, Links::Streams, 0), (2, Links::Datagrams, 0), (3, Links::Streams, 5), (4, Links::Datagrams, 20)]
    {
        let mut cluster = Cluster::start(seed, links, lost);
        ticks(&mut cluster, 20);
        for second in 0..40 {
            ticks(&mut cluster, 1);
            assert!(cluster.fewest_neighbours() > 0, "seed {seed}, second {second}");
            cluster.write(second % NODES, &format!("key-{second}"), "on");
        }
        // Each two meet in fifteen ticks, if no frame of theirs is lost.
        let ticks = ticks_to_agree(&mut cluster);
        assert!(lost > 0 || ticks <= 15, "seed {seed}: {ticks} ticks");
    }
}

#[test]
fn a_node_that_begins_anew_is_found_again() {
    let mut cluster = Cluster::start(5, Links::Streams, 0);
    ticks(&mut cluster, 20);
    for turn in 0..8 {
        // It has stored nothing of what the others wrote.
        cluster.kill(turn * 2);
        cluster.begin(turn * 2);
        cluster.write(1, &format!("key-{turn}"), "on");
        ticks(&mut cluster, 3);
        assert!(cluster.fewest_neighbours() > 0);
        assert!(ticks_to_agree(&mut cluster) <= 15);
    }
}

#[test]
fn a_silent_member_is_given_up() {
    let mut cluster = Cluster::start(6, Links::Datagrams, 0);
    ticks(&mut cluster, 20);
    // Once node 15 was silent for a minute nobody has it as a neighbour.
    cluster.kill(15);
    ticks(&mut cluster, 80);
    assert!(cluster.living().all(|node| !node.neighbours().unwrap().contains(&15)));
    assert!(cluster.fewest_neighbours() > 0);
}

#[test]
fn who_is_down_stays_no_neighbour_through_which_joins_go() {
    let mut driver = Driver::new(Node::new(0, 1).unwrap(), 0, PACE).unwrap();
    driver.add(0, 1).unwrap();
    driver.add(0, 2).unwrap();
    // Each tick joins through one of them; neither is there, so each link fails.
    for tick in 0..6 {
        let now = tick * PACE.tick;
        driver.on_time(now).unwrap();
        let contact = 1 + (tick % 2) as u16;
        assert_eq!(driver.node().neighbours().unwrap(), [contact]);
        driver.frames();
        driver.on_failure(now, contact).unwrap();
        driver.frames();
        assert_eq!(driver.node().neighbours().unwrap(), []);
    }
}
