// Shell round the trimmed text of rumqttc 0.25.1 (the folder v5), and what is run against it, which is no part of the text.
pub mod v5 {
    #![allow(unused_imports, dead_code)]
    pub mod mqttbytes;
}
pub use v5::mqttbytes::v5 as codec;
pub use v5::mqttbytes::{Error, QoS};
pub mod compare;
pub mod journal;
pub mod limit;
pub mod same;
pub mod state;
pub mod streams;
pub mod timing;
pub mod topics;
