"""Pictures in SVG: waits of calls for one another, and flame graphs of gas."""
