"""What judges the conformance of an implementation: what encoders and receivers share."""
