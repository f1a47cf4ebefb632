"""Sessions of `rvstm chain`: requests, answers, frames, the process that answers, and nodes that drive it."""
