"""What each command is answered, and the effects that it has."""
