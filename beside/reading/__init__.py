"""An executable reading of document 01, independent of the proved code. nesting and loops were written with cfg.rs at hand.

store    blocks, numbers, checks, payload words          refusals 1 to 3
record   the record's words, its references, `show`      refusals 4 to 8
nesting  try_claim_edge_bundle and all below it          refusal 9
sheet    the last rewriting, figure, words and text      refusals 10 and 11
runs     the graph's run and the nested run
loops    LoopFinder, for exit lists as the Rust finds them
"""
