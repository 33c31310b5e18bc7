module "m" {
  source = "hg::http://e.com/r?ref=v1"
}
