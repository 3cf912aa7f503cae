//! What several tests start from.

// Not each of them needs all of it.
#![allow(dead_code)]

use nscc::{Ack, Settings};

/// The settings E of 01.
pub fn e() -> Settings {
    Settings {
        mtu: 4096,
        max_wnd: 614_400,
        config_base_rtt: 96,
        target_qdelay: 72,
        fi: 4096,
        eta: 1024,
        alpha: 224,
        gamma: 819,
        max_md_jump: 512,
        adjust_period: 96,
        adjust_bytes: 32_768,
        qa_threshold: 288,
        first_psn: 0,
        quick_adapt_off: false,
        ev_count: 256,
    }
}

/// The ACK of the worked example of 01.
pub fn worked_ack() -> Ack {
    Ack {
        time: 110,
        flow: 0,
        cum: 0,
        map: 0,
        trigger: 0,
        count: 16,
        service: 4,
        ev: 0,
        marked: false,
        retx: false,
    }
}

/// The settings E as a log's first record: 57 bytes.
pub fn settings_record() -> Vec<u8> {
    let mut record = vec![55, 0, 16, 0];
    for number in e().numbers() {
        record.extend(u32::try_from(number).expect("small").to_le_bytes());
    }
    record.extend([0; 5]);
    record
}
