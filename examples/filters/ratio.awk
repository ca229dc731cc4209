# Multiplies the sampling ratio in, once: the mark tells whether it was done. On its own output this filter changes nothing.
$4 == "raw" {
    $2 = $2 * $3
    $4 = "scaled"
}
{ print }
