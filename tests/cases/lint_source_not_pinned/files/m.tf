module "m" {
  source = "git::https://e.com/r.git?ref="
}
