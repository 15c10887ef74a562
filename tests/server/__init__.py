"""The server over TCP, clocked and steered."""
