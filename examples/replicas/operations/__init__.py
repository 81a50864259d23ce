"""The commands of avroreg-cluster: an operator's work on a cluster, and on one of its nodes."""
