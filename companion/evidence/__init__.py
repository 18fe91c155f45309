"""The search for evidence: certificates that a dependence can't be there, which ped checks before it believes them."""
