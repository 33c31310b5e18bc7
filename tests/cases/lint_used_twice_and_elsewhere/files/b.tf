output "o" {
  value = <<EOT
${var.n}${var.n}
EOT
}
