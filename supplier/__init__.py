"""The supplier's path: from a sheet and an invariant to a certificate."""
