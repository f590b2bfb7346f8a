"""The exact model of sizes and of byte_unit_lines, and generated inputs."""
