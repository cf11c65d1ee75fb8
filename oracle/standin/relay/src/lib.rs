//! Stand-in for `minip2p_relay`: a STOP responder whose CONNECT is the
//! source's eight handle bytes. The rule leaves the STOP phase out, so it
//! only brings a circuit to its handshake.

#[derive(Debug)]
pub struct RelayError;

#[derive(Clone, Copy, Debug)]
pub enum Status {
    MalformedMessage,
    ResourceLimitExceeded,
}

pub struct StopRequest {
    pub source_peer_id: Vec<u8>,
}

pub enum StopResponderOutput {
    Request(StopRequest),
    Outbound(Vec<u8>),
    BridgeData(Vec<u8>),
}

#[derive(Default)]
pub struct StopResponder {
    request: Option<StopRequest>,
}

impl StopResponder {
    pub fn new() -> Self {
        Self::default()
    }

    pub fn on_data(&mut self, data: &[u8]) -> Result<(), RelayError> {
        self.request = Some(StopRequest {
            source_peer_id: data.to_vec(),
        });
        Ok(())
    }

    pub fn on_remote_write_closed(&mut self) -> Result<(), RelayError> {
        Ok(())
    }

    pub fn poll_output(&mut self) -> Option<StopResponderOutput> {
        self.request.take().map(StopResponderOutput::Request)
    }

    pub fn accept(&mut self) -> Result<(), RelayError> {
        Ok(())
    }

    pub fn reject(&mut self, _status: Status) -> Result<(), RelayError> {
        Ok(())
    }
}
