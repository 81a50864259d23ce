"""The relay of one node of a replicated avroreg. ../README.md has its guarantees and assumptions."""
