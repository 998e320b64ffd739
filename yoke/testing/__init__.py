"""What the companion is tried against: a strict server of API 0.6 on the loopback address."""
