"""A telephone exchange that is driven by the desk: a back-to-back user agent for SIP, in Python's own library."""
