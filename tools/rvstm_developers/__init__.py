"""Commands for work on rvstm itself: bench measures it, trials try it, commands check its sources."""
