//! Document 01's log, a configuration and a fix, written into a buffer.

use track::{EkfConfig, LogWriter, WriteRefusal};

pub fn sample(buf: &mut [u8]) -> Result<&[u8], WriteRefusal> {
    let config = EkfConfig {
        r_pos: 100.0,
        ..EkfConfig::default()
    };
    let mut writer = LogWriter::new(buf);
    writer.write_config(config)?;
    writer.write_position(80.0, 0.0)?;
    let used = writer.used();
    Ok(&buf[..used])
}
