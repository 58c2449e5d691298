"""The program beside HarfBuzz, on real fonts and on texts made of lists of words."""
