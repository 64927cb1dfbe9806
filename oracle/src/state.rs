// CHANGED: from src/v5/state.rs of rumqttc 0.25.1 (Apache-2.0), the record of outgoing messages alone: `new`, `outgoing_publish`, the three
// answers, `check_collision` and `next_pkid`. Left out: requests, events, logs, pings, aliases, what comes in, and packets handed back. A
// `FixedBitSet` is a `Vec<bool>` with the same `contains`, `insert` and `set`. The other lines are the crate's.
use crate::codec::{PubAck, PubAckReason, PubComp, PubCompReason, PubRec, PubRecReason, Publish};
use crate::QoS;

/// Received a packet (ack) which isn't asked for
#[derive(Debug, PartialEq, Eq)]
pub struct Unsolicited(pub u16);

#[derive(Debug, Clone)]
struct Bits(Vec<bool>);

impl Bits {
    fn contains(&self, i: usize) -> bool {
        self.0.get(i) == Some(&true)
    }
    fn insert(&mut self, i: usize) {
        self.0[i] = true;
    }
    fn set(&mut self, i: usize, b: bool) {
        self.0[i] = b;
    }
}

#[derive(Debug, Clone)]
pub struct MqttState {
    /// Packet id of the last outgoing packet
    last_pkid: u16,
    /// Number of outgoing inflight publishes
    pub inflight: u16,
    /// Outgoing QoS 1, 2 publishes which aren't acked yet
    outgoing_pub: Vec<Option<Publish>>,
    /// Packet ids of released QoS 2 publishes
    outgoing_rel: Bits,
    /// Last collision due to broker not acking in order
    collision: Option<Publish>,
    /// Maximum number of allowed inflight QoS1 & QoS2 requests
    max_outgoing_inflight: u16,
}

impl MqttState {
    pub fn new(max_inflight: u16) -> Self {
        MqttState {
            last_pkid: 0,
            inflight: 0,
            // index 0 is wasted as 0 is not a valid packet id
            outgoing_pub: vec![None; max_inflight as usize + 1],
            outgoing_rel: Bits(vec![false; max_inflight as usize + 1]),
            collision: None,
            max_outgoing_inflight: max_inflight,
        }
    }

    /// What is kept of an identifier: the message that waits, and whether it was released. No part of the crate's text.
    pub fn kept(&self, pkid: usize) -> (Option<QoS>, bool) {
        (self.outgoing_pub.get(pkid).and_then(|p| p.as_ref().map(|p| p.qos)), self.outgoing_rel.contains(pkid))
    }

    /// The identifier of the message that is kept aside. No part of the crate's text.
    pub fn aside(&self) -> Option<u16> {
        self.collision.as_ref().map(|p| p.pkid)
    }

    pub fn handle_incoming_puback(&mut self, puback: &PubAck) -> Result<(), Unsolicited> {
        let publish = self
            .outgoing_pub
            .get_mut(puback.pkid as usize)
            .ok_or(Unsolicited(puback.pkid))?;

        if publish.take().is_none() {
            return Err(Unsolicited(puback.pkid));
        }

        self.inflight -= 1;

        if puback.reason != PubAckReason::Success
            && puback.reason != PubAckReason::NoMatchingSubscribers
        {
            return Ok(());
        }

        if let Some(publish) = self.check_collision(puback.pkid) {
            self.outgoing_pub[publish.pkid as usize] = Some(publish.clone());
            self.inflight += 1;
        }

        Ok(())
    }

    pub fn handle_incoming_pubrec(&mut self, pubrec: &PubRec) -> Result<(), Unsolicited> {
        let publish = self
            .outgoing_pub
            .get_mut(pubrec.pkid as usize)
            .ok_or(Unsolicited(pubrec.pkid))?;

        if publish.take().is_none() {
            return Err(Unsolicited(pubrec.pkid));
        }

        if pubrec.reason != PubRecReason::Success
            && pubrec.reason != PubRecReason::NoMatchingSubscribers
        {
            return Ok(());
        }

        // NOTE: Inflight - 1 for qos2 in comp
        self.outgoing_rel.insert(pubrec.pkid as usize);
        Ok(())
    }

    pub fn handle_incoming_pubcomp(&mut self, pubcomp: &PubComp) -> Result<(), Unsolicited> {
        let _outgoing = self.check_collision(pubcomp.pkid);

        if !self.outgoing_rel.contains(pubcomp.pkid as usize) {
            return Err(Unsolicited(pubcomp.pkid));
        }
        self.outgoing_rel.set(pubcomp.pkid as usize, false);

        if pubcomp.reason != PubCompReason::Success {
            return Ok(());
        }

        self.inflight -= 1;
        Ok(())
    }

    /// Adds next packet identifier to QoS 1 and 2 publish packets. Gives it, and whether the message is sent; else it is kept aside.
    pub fn outgoing_publish(&mut self, mut publish: Publish) -> Result<(u16, bool), Unsolicited> {
        if publish.qos != QoS::AtMostOnce {
            if publish.pkid == 0 {
                publish.pkid = self.next_pkid();
            }

            let pkid = publish.pkid;
            if self
                .outgoing_pub
                .get(publish.pkid as usize)
                .ok_or(Unsolicited(publish.pkid))?
                .is_some()
            {
                self.collision = Some(publish);
                return Ok((pkid, false));
            }

            // if there is an existing publish at this pkid, this implies that broker hasn't acked this
            // packet yet. This error is possible only when broker isn't acking sequentially
            self.outgoing_pub[pkid as usize] = Some(publish.clone());
            self.inflight += 1;
        };

        Ok((publish.pkid, true))
    }

    fn check_collision(&mut self, pkid: u16) -> Option<Publish> {
        if let Some(publish) = &self.collision {
            if publish.pkid == pkid {
                return self.collision.take();
            }
        }

        None
    }

    /// http://stackoverflow.com/questions/11115364/mqtt-messageid-practical-implementation
    /// Packet ids are incremented till maximum set inflight messages and reset to 1 after that.
    ///
    fn next_pkid(&mut self) -> u16 {
        let next_pkid = self.last_pkid + 1;

        // When next packet id is at the edge of inflight queue,
        // set await flag. This instructs eventloop to stop
        // processing requests until all the inflight publishes
        // are acked
        if next_pkid == self.max_outgoing_inflight {
            self.last_pkid = 0;
            return next_pkid;
        }

        self.last_pkid = next_pkid;
        next_pkid
    }
}
