output "o" {
  value = data.t.n.id
}
data "t" "n" {}
data "t" "k" {}
