"""What results say: endings, pairs, scores and the sequential test."""
