"""Models in Python of parts of rvstm."""
