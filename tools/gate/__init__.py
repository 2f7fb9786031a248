"""The tools that the gate runs (.ci/run), each by `tools/run NAME`."""
