# Tea has a card of its own.
redo-ifchange tea.price
printf 'loose tea '
cat tea.price
