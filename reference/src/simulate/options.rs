//! What a simulated group is like.

/// Chances are in percent unless said otherwise. Groups driven by made records alone have no use
/// for `missed`, `lost_vertices`, `members`, `premises` and `certified_leaders`: their vertices all
/// arrive, and the premises hold.
#[derive(Clone, Debug)]
pub struct Options {
    /// Rounds that the group runs, from 1 to 32.
    pub rounds: u32,
    /// Faulty members; no more than f are drawn.
    pub faulty: u32,
    /// That a member makes no vertex in a round; of made records alone, a faulty member.
    pub silent: u32,
    /// That a vertex is slow: most members of the next round miss it.
    pub slow: u32,
    /// That a member misses a vertex that is not slow.
    pub missed: u32,
    /// That a replica never gets a first message, timeout or no-vote; of made records alone, a
    /// first message.
    pub lost_messages: u32,
    /// That a replica never gets anybody's timeout for a round: vertices that carry the certificate
    /// are then all that ends the round for it.
    pub lost_timeouts: u32,
    /// That a replica gets timeouts in bundles; half of these get some as single notes too. With 0
    /// nobody does, nor is a bundle among the calls that are to be refused.
    pub bundles: u32,
    /// That a replica hands vertices over as they come, with a pending buffer; half of these hand
    /// some over in order too. With 0 nobody does, nor is a vertex with a buffer among the calls that
    /// are to be refused.
    pub buffers: u32,
    /// That a faulty member sends a replica a first message that names the previous leader, or some of
    /// several, exactly if its vertex does not. With 0 nobody is drawn for it; of made records alone
    /// nobody does it.
    pub split_votes: u32,
    /// That a replica never gets a vertex, in a thousand; what builds on it is then refused.
    pub lost_vertices: u32,
    /// How far messages are delayed, in hundredths of a round.
    pub spread: u32,
    /// That a vertex whose parents are not held is given to the state before it is retried.
    pub eager: u32,
    /// That a call is followed by one that is to be refused.
    pub noise: u32,
    /// That a replica stops before the end of the run.
    pub early_stop: u32,
    /// That a replica is a member's, which makes records and signs no-votes; else a watcher's. With
    /// 0 no replica makes these calls.
    pub members: u32,
    /// Whether the premises of the agreement claim hold: a single vertex for a round and source,
    /// honest first messages equal to the vertex, and no honest voter in a no-vote mask.
    pub premises: bool,
    /// The leaders of a round, from index 0 on, against which the next main leader's vertex needs
    /// no-votes where it lacks them: at least the main one, and no more than there are. With fewer than
    /// there are the premise about no-votes fails for the others.
    pub certified_leaders: u32,
}

impl Options {
    /// Nobody is faulty and every vertex arrives: a full state at the end.
    pub fn calm() -> Options {
        Options {
            rounds: 32,
            faulty: 0,
            silent: 0,
            slow: 0,
            missed: 3,
            lost_messages: 10,
            lost_timeouts: 0,
            bundles: 60,
            buffers: 50,
            split_votes: 40,
            lost_vertices: 0,
            spread: 80,
            eager: 10,
            noise: 5,
            early_stop: 0,
            members: 70,
            premises: true,
            certified_leaders: u32::MAX,
        }
    }

    /// Some trouble of every kind; most rounds commit.
    pub fn typical() -> Options {
        Options {
            faulty: u32::MAX,
            silent: 5,
            slow: 10,
            missed: 6,
            lost_messages: 20,
            lost_timeouts: 40,
            spread: 150,
            eager: 40,
            noise: 20,
            early_stop: 20,
            ..Options::calm()
        }
    }

    /// As typical, with half of the messages lost, and with faulty members that mostly vote by one
    /// record of two.
    pub fn split() -> Options {
        Options {
            lost_messages: 50,
            split_votes: 80,
            ..Options::typical()
        }
    }

    /// Many skipped leaders, lost messages and lost vertices.
    pub fn rough() -> Options {
        Options {
            silent: 15,
            slow: 30,
            missed: 15,
            lost_messages: 50,
            lost_timeouts: 60,
            lost_vertices: 2,
            spread: 400,
            noise: 50,
            ..Options::typical()
        }
    }

    /// As rough, and without the premises: only for comparing states, not for the claim.
    pub fn wild() -> Options {
        Options {
            premises: false,
            ..Options::rough()
        }
    }
}
