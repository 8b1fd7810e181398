"""Tables of whole programs, traced as they run."""
