module "m" {
  source = "git::https://e.com/r.git?depth=1&ref=v1"
}
