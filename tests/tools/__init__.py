"""The tools: what they make of what rt says, and what they leave when they are stopped."""
