"""What both programs cost: instructions, writes, steps and memory."""
