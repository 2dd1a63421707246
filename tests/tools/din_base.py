"""Tables of din for the tests of plot and best."""

# Two sizes and three policies over 1,000 references. Random replacement has three seeds: 30, 42 and
# 33 misses are 35 in the mean
COLUMNS = "l1-usize,l1-ubsize,l1-uassoc,l1-urepl,seed,l1-u-references,l1-u-misses,l1-u-percent"
COLUMNS += ",memory-writes,bypassed"
POLICIES = {
    (64, "l"): (100, 100, 100), (64, "f"): (200, 200, 200), (64, "r"): (120, 180, 150),
    (128, "l"): (20, 20, 20), (128, "f"): (25, 25, 25), (128, "r"): (30, 42, 33),
}


def din_rows(policies, ways=2, bsize=16):
    """Rows of a table of din, given the misses of 1,000 references by size and policy."""
    return "".join(
        f"{size},{bsize},{ways},{policy},{seed},1000,{missed},{missed / 10:.3f},{missed // 10},0\n"
        for (size, policy), misses in policies.items()
        for seed, missed in enumerate(misses, 1)
    )
