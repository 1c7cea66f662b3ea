"""Files for testbenches of RTL: bits in beats, vectors by code block, shift tables as ROMs, and drawn transmissions."""
