"""What the scripts of tools/ share, in a folder for each purpose. A folder imports only from those above it:

  scripts     the outcome of a script, its help and its lines, and the files of numbers that it measured
  documents   checks that what the documents of the repository name exists
  formats     files and datagrams: their grammar, how they are read, described and captured
  programs    how the program `bar` and the programs of the tools are built and run
  sessions    the folder of a session, and how one is made
  networks    the network between parties: losses and lies, relays, hosts and forwarders
  reports     what happened in a run, by the files that it left
  drawings    a run, drawn as a picture and as a page
  runs        how a session is run: live, disturbed, over hosts or simulated
  measures    experiments and their picture, and what datagrams cost
  attacks     a sender that attacks a session, and what is required of those that keep the rules
  trouble     the program when the system fails: disks, limits, signals, clocks, memory and streams
"""
