"""What `tools/blocks` is made of: files and their records (`sources`), cells (`cells`), tables (`tables`), what is written
(`outputs`), alternatives (`alternatives`), and a module for each command."""
