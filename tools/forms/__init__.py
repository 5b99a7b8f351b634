"""The planner's files and their JSON texts. `kinds` has the layouts, put together from the pieces in the other modules."""
