left out too
