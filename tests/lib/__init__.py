"""What the scripts of tests/ share. They are run from their own folder, so they import it as `lib`."""
