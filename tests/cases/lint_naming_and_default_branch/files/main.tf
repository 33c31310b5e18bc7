module "M" {
  source = "github.com/a/b?ref=main"
}
