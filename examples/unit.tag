<hr width={
  - 5px
}/>
