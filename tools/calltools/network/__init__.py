"""What a call sends and hears: sockets, RTP and RTCP, captures, bad networks, rooms."""
