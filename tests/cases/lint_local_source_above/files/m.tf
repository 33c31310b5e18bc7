module "m" {
  source = "../a/b"
}
