"""What requests cost, beside redis-server."""
