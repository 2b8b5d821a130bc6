"""A server of Watchman's protocol over mounts, so that what speaks to Watchman can use
Railburnet."""
