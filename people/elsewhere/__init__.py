"""Issues of other trackers with their histories, as a setup and request lines. One subject a module."""
