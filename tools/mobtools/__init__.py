"""What the tools of this folder share. Python 3 and its standard library are enough; `places` uses
pyproj where a projection is asked for by name."""
