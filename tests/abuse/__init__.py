"""What users without rights and strangers can cause."""
