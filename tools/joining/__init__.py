"""Makes runs that `totem audit` reads from folders of logs, one for each process. docs/OWN-LOGS.md explains how to use it."""
