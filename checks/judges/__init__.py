"""What judges octets apart from the gateway, by the standards and by the documents."""
