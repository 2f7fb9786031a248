"""Tools for engineers, each by `tools/run NAME`, and some that stand alone."""
