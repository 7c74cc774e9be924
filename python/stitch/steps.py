"""How a drawing becomes ready to be sewn."""

# The commands of stitch_drawing that follow `snap`, in their order.
STEPS = ("cross", "space", "free", "near")
