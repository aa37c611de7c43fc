# What is added to cfg.rs: one counter in try_claim_edge_bundle, and at the end
# one line that gives our module a place where it sees what is private.
{ print }
/^    fn try_claim_edge_bundle\($/ { inside = 1 }
inside && /{$/ { print "        beside::attempt();"; inside = 0 }
END { print "pub mod beside;" }
