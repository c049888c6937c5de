# One card below the other.
redo-ifchange bread.card cheese.card milk.card tea.card wine.card
cat bread.card cheese.card milk.card tea.card wine.card
